//! Every call made twice, by the library and by the independent
//! implementation: the answer and every lent byte must be the same.

use reference::answer::{answer_number, Refusal};
use reference::history::{Answer, Calls, Given, Images, Kind, Reference, Request};
use reference::volume::Survey;

/// The calls of both.
pub struct Both;

impl Calls for Both {
    fn run(
        &self,
        request: &Request,
        images: &mut Images,
        map: &mut [u64],
        output: &mut [u8],
    ) -> Answer {
        let (mut lent, mut lent_map) = (images.clone(), map.to_vec());
        let mut out = output.to_vec();
        let number = library_run(request, &mut lent, &mut lent_map, &mut out);
        let answer = Reference.run(request, images, map, output);
        let kind = request.kind;
        assert_eq!(number, u32::from(answer_number(&answer)), "{kind:?}");
        assert!(lent == *images, "{kind:?} left other images");
        assert_eq!(lent_map, map, "{kind:?} left another map");
        assert_eq!(out, output, "{kind:?} left another output");
        answer
    }

    fn survey(
        &self,
        given: &Given,
        images: &Images,
        map: &[u64],
        list: &mut [u32],
    ) -> Result<Survey, Refusal> {
        let before = list.to_vec();
        let answer = Reference.survey(given, images, map, list);
        let due = match &answer {
            Ok(survey) => (0, survey.numbers()),
            Err(refusal) => (u32::from(refusal.number()), [FILL; 5]),
        };
        for survey in [crate::survey, crate::survey_without_wrapper] {
            let (mut lent, mut lent_map) = (before.clone(), map.to_vec());
            let mut counts = [FILL; 5];
            let number =
                library_survey(survey, given, images, &mut lent_map, &mut lent, &mut counts);
            assert_eq!((number, counts), due, "survey");
            assert_eq!(lent, list, "survey left another list");
            assert_eq!(lent_map, map, "survey left another map");
        }
        answer
    }

    fn start_map(&self, count: usize, map: &mut [u64]) -> Result<(), Refusal> {
        let before = map.to_vec();
        let answer = Reference.start_map(count, map);
        for start in [crate::start_map, crate::start_map_of_volume] {
            let mut lent = before.clone();
            let number = start(count, &mut lent);
            assert_eq!(number, u32::from(answer_number(&answer)), "start");
            assert_eq!(lent, map, "start left another map");
        }
        answer
    }

    fn count_suspects(&self, count: usize, map: &[u64]) -> Result<u64, Refusal> {
        let answer = Reference.count_suspects(count, map);
        let due = match answer {
            Ok(suspects) => (0, suspects),
            Err(refusal) => (u32::from(refusal.number()), FILL),
        };
        for count_suspects in [
            crate::count_suspects,
            crate::count_suspects_of_volume,
            crate::count_suspects_without_wrapper,
        ] {
            let (mut lent, mut suspects) = (map.to_vec(), FILL);
            let number = count_suspects(count, &mut lent, &mut suspects);
            assert_eq!((number, suspects), due, "count");
            assert_eq!(lent, map, "count left another map");
        }
        answer
    }
}

/// What is in the counts before a survey, and in the number before a count.
const FILL: u64 = 0x5a5a;

type SurveyCall =
    fn(&[u8], u64, usize, usize, &[u8], &[u8], &[u8], &mut [u64], &mut [u32], &mut [u64; 5]) -> u32;

fn library_survey(
    survey: SurveyCall,
    given: &Given,
    images: &Images,
    map: &mut [u64],
    list: &mut [u32],
    counts: &mut [u64; 5],
) -> u32 {
    let Given {
        ref key,
        volume: v,
        size: s,
        count: n,
    } = *given;
    let Images { local, tag, remote } = images;
    survey(key, v, s, n, local, tag, remote, map, list, counts)
}

fn library_run(request: &Request, images: &mut Images, map: &mut [u64], out: &mut [u8]) -> u32 {
    let Given {
        ref key,
        volume: v,
        size: s,
        count: n,
    } = request.given;
    let i = request.number;
    let Images { local, tag, remote } = images;
    let plain = &request.plaintext;
    match request.kind {
        Kind::Blank => crate::blank(key, v, s, n, i, local, tag, remote, map),
        Kind::First => crate::first_stage(key, v, s, n, i, plain, local, tag, remote, map),
        Kind::Second => crate::second_stage(key, v, s, n, i, plain, local, tag, remote, map),
        Kind::Third => crate::third_stage(key, v, s, n, i, plain, local, tag, remote, map),
        Kind::Mend => crate::mend(key, v, s, n, i, local, tag, remote, map),
        Kind::Read => crate::read(key, v, s, n, i, local, tag, remote, map, out),
        Kind::Write => crate::write(key, v, s, n, i, plain, local, tag, remote, map),
    }
}
