//! The header for C has the same version as the bindings and the library, and words for each refusal that they know.

use bridgenook::Reason;

const HEADER: &str = include_str!("../../../include/bridgenook.h");

#[test]
fn the_header_and_the_library_have_the_same_version() {
    let part = |name: &str| -> u32 {
        let line = format!("#define BRIDGENOOK_VERSION_{name} ");
        let rest = &HEADER[HEADER.find(&line).expect(&line) + line.len()..];
        rest.lines().next().unwrap().parse().unwrap()
    };
    let header = part("MAJOR") * 1_000_000 + part("MINOR") * 1_000 + part("PATCH");
    assert_eq!(
        (bridgenook::VERSION, bridgenook::linked_version()),
        (header, header)
    );
}

#[test]
fn the_header_has_words_for_each_refusal() {
    let words = &HEADER[HEADER.find("*bridgenook_words(").unwrap()..];
    let words = &words[..words.find("\n}\n").unwrap()];
    let cases: Vec<u32> = words
        .lines()
        .filter_map(|line| {
            line.trim()
                .strip_prefix("case ")?
                .strip_suffix(':')?
                .parse()
                .ok()
        })
        .collect();
    let known: Vec<u32> = std::iter::once(0)
        .chain(Reason::ALL.map(Reason::number))
        .collect();
    assert_eq!(cases, known);
    let said: Vec<&str> = words
        .lines()
        .filter_map(|line| line.trim().strip_prefix("return "))
        .collect();
    assert_eq!(said.len(), known.len() + 1);
    assert_eq!(said.last(), Some(&"\"unknown refusal\";"));
    for (at, one) in said.iter().enumerate() {
        assert!(!said[..at].contains(one), "{one} stands twice");
    }
}
