//! The survey as a JSON object. All texts in it are of plain characters.

use mirror::Place;

use crate::runs::Run;
use crate::superblock::Superblock;
use crate::survey::Report;

pub fn status(superblock: &Superblock, report: &Report) -> String {
    let shape = &superblock.shape;
    let [local, tags, remote] = report.unreadable;
    let runs: Vec<String> = report.runs().map(run).collect();
    let fields = [
        ("uuid", format!("\"{}\"", superblock.uuid)),
        ("bytes", shape.bytes().to_string()),
        ("sectors", shape.sectors.to_string()),
        ("sector_bytes", shape.sector_bytes.to_string()),
        ("parts", shape.parts().to_string()),
        ("part_sectors", shape.part_sectors.to_string()),
        ("first_number", shape.first_number.to_string()),
        (
            "last_number",
            shape.number_of(shape.parts() - 1).to_string(),
        ),
        ("whole", report.whole.to_string()),
        ("doubtful", report.doubtful.to_string()),
        ("clashing", report.clashing.to_string()),
        ("lost", report.lost.to_string()),
        ("health", report.health().to_string()),
        (
            "unreadable",
            format!("{{\"local\": {local}, \"tags\": {tags}, \"remote\": {remote}}}"),
        ),
        ("runs", format!("[{}]", runs.join(", "))),
    ];
    let fields = fields.map(|(name, value)| format!("  \"{name}\": {value}"));
    format!("{{\n{}\n}}\n", fields.join(",\n"))
}

fn run(run: &Run) -> String {
    let place = match run.kind.place() {
        None => "null",
        Some(Place::Local) => "\"local\"",
        Some(Place::Tag) => "\"tag\"",
        Some(Place::Remote) => "\"remote\"",
    };
    format!(
        "{{\"first\": {}, \"last\": {}, \"verdict\": \"{}\", \"place\": {place}}}",
        run.first,
        run.last,
        run.kind.name()
    )
}
