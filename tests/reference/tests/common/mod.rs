//! Helpers that several test programs share.
#![allow(dead_code)]

use std::io::Write;
use std::process::{Command, Stdio};

use reference::field::product;
use reference::hex;
use reference::rng::Rng;

/// A key of given h with a random AES key.
pub fn key_with_h(rng: &mut Rng, h: u128) -> Vec<u8> {
    [h.to_be_bytes().to_vec(), rng.bytes(16)].concat()
}

/// The hash as the words have it, with h^t as t factors.
pub fn direct_brw(h: u128, x: &[u128]) -> u128 {
    match x.len() {
        0 => 0,
        1 => x[0],
        2 => product(x[0], h) ^ x[1],
        3 => product(h ^ x[0], product(h, h) ^ x[1]) ^ x[2],
        k => {
            let t = (1..=k).filter(|t| t.is_power_of_two()).max().unwrap();
            let h_t = (0..t).fold(1, |power, _| product(power, h));
            product(direct_brw(h, &x[..t - 1]), h_t ^ x[t - 1]) ^ direct_brw(h, &x[t..])
        }
    }
}

/// Encrypts with the `openssl` command in ECB mode. Where there is no such
/// command the test fails: without it nothing from outside is compared.
pub fn openssl_ecb(key: &[u8], data: &[u8]) -> Vec<u8> {
    let cipher = format!("-aes-{}-ecb", 8 * key.len());
    let started = Command::new("openssl")
        .args(["enc", &cipher, "-nopad", "-K", &hex::encode(key)])
        .stdin(Stdio::piped())
        .stdout(Stdio::piped())
        .spawn();
    let mut child = started.unwrap_or_else(|error| {
        panic!(
            "the command `openssl` does not start ({error}): install it, \
             as by `apt install openssl`, and put it on the path"
        )
    });
    // The data is far below what a pipe holds, so this write cannot block.
    assert!(data.len() <= 8192);
    let mut stdin = child.stdin.take().expect("standard input is piped");
    stdin.write_all(data).expect("openssl reads its input");
    drop(stdin);
    let output = child.wait_with_output().expect("openssl ends");
    assert!(output.status.success(), "openssl failed");
    assert_eq!(output.stdout.len(), data.len(), "openssl gives as much");
    output.stdout
}
