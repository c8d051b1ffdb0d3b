//! The table that the comparison holds the engine to is the one of `iconv`, byte by byte.

use compare::windows1252::byte_of;
use std::io::Write;
use std::process::{Command, Stdio};

// None where the byte has no character.
fn character_of(byte: u8) -> Option<char> {
    let mut iconv = Command::new("iconv")
        .args(["-f", "CP1252", "-t", "UTF-8"])
        .stdin(Stdio::piped())
        .stdout(Stdio::piped())
        .stderr(Stdio::null())
        .spawn()
        .expect("iconv is on the PATH");
    iconv.stdin.take().unwrap().write_all(&[byte]).unwrap();
    let said = iconv.wait_with_output().unwrap();
    let text = String::from_utf8(said.stdout).unwrap();
    said.status.success().then(|| text.chars().next().unwrap())
}

#[test]
fn the_table_is_that_of_iconv() {
    let mut code_points = Vec::new();
    for byte in 0..=0xff {
        if let Some(character) = character_of(byte) {
            assert_eq!(byte_of(character.into()), Some(byte), "{character}");
            code_points.push(u32::from(character));
        }
    }
    assert_eq!(code_points.len(), 251);
    let others = (0..0x11_0000).filter(|c| !code_points.contains(c));
    assert_eq!(others.filter(|&c| byte_of(c).is_some()).count(), 0);
}
