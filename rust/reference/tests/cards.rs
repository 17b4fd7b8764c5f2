//! The cards of vectors/cards.txt, and the images in it against the generators.

use inputs::structured::{blocks, briefcase, changer, gripper, transport};
use reference::card::card;

struct Case {
    name: String,
    words: Vec<u16>,
    text: String,
}

/// Each case: a line "case NAME: why", a line of words, the card's lines and
/// an empty line.
fn cases() -> Vec<Case> {
    let file = include_str!("../../vectors/cards.txt");
    let behind_header = file.split_once('\n').expect("a header").1;
    let case = |block: &str| {
        let (title, rest) = block.split_once('\n').expect("a title");
        let (words, text) = rest.split_once('\n').expect("words");
        let name = title.strip_prefix("case ").expect("a case");
        Case {
            name: name.split(':').next().expect("a name").to_string(),
            words: words
                .split(' ')
                .map(|word| word.parse().expect("a word"))
                .collect(),
            text: format!("{text}\n"),
        }
    };
    let blocks = behind_header.trim_end().split("\n\n");
    blocks.map(case).collect()
}

#[test]
fn all_cards() {
    let cases = cases();
    assert_eq!(cases.len(), 46);
    for case in cases {
        let input: Vec<u8> = case
            .words
            .iter()
            .flat_map(|word| word.to_le_bytes())
            .collect();
        assert_eq!(card(&input), case.text, "case {}", case.name);
    }
}

#[test]
fn generators_make_the_images() {
    let image = |name: &str| {
        let case = cases().into_iter().find(|case| case.name == name);
        case.expect(name).words.split_off(2)
    };
    assert_eq!(gripper(4, 3, 2).image(), image("gripper-4-3-2-n2"));
    assert_eq!(blocks(3).image(), image("blocks-3-n2"));
    assert_eq!(briefcase(2, 3).image(), image("briefcase-2-3-n2"));
    assert_eq!(transport(2, 2, 3).image(), image("transport-2-2-3-n3"));
    assert_eq!(changer(2, 3).image(), image("changer-2-3-n3"));
}
