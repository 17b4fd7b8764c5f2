//! The worked example of docs/JOINING.md: its images, texts and lists.

use kulabismuth::Reply;
use reference::join::union;

const PAGE: &str = include_str!("../../../docs/JOINING.md");

/// The indented blocks of the page.
fn blocks() -> Vec<String> {
    let mut blocks = vec![String::new()];
    for line in PAGE.lines() {
        let last = blocks.last_mut().expect("a block");
        match line.strip_prefix("    ") {
            Some(line) => *last += &format!("{line}\n"),
            None if last.is_empty() => {}
            None => blocks.push(String::new()),
        }
    }
    blocks.retain(|block| !block.is_empty());
    blocks
}

fn words(block: &str) -> Vec<u16> {
    let words = block.split_whitespace();
    words.map(|word| word.parse().expect("a word")).collect()
}

/// The rows of a text for a task.
fn rows(image: &[u16], text: &str) -> Vec<u16> {
    let mut rows = vec![0; 30];
    let read = kulabismuth::read_dimacs(image, text.as_bytes(), &mut rows);
    assert_eq!(read.number, 0, "{text}");
    rows.truncate(3 * read.first as usize);
    rows
}

#[test]
fn the_page_is_right() {
    let blocks = blocks();
    let [ring, hatch, joined, ring_text, hatch_text, text] = &blocks[..] else {
        panic!("not six blocks: {blocks:?}");
    };
    let [ring, hatch, joined] = [ring, hatch, joined].map(|block| words(block));
    assert_eq!(ring, inputs::structured::ring(3).image());
    let mut target = vec![7; 60];
    let reply = kulabismuth::join(&ring, &hatch, &mut target);
    assert_eq!(reply, Reply::finding(55, 0));
    assert_eq!(target, [&joined[..], &[7; 5]].concat());

    let sets = [rows(&ring, ring_text), rows(&hatch, hatch_text)];
    let fine = Reply::finding(0, 0);
    assert_eq!(kulabismuth::check(&ring, &sets[0], &mut [0]), fine);
    assert_eq!(kulabismuth::check(&hatch, &sets[1], &mut [0]), fine);
    let both = rows(&joined, text);
    assert_eq!(both, union(3, &sets[0], &sets[1]));
    assert_eq!(kulabismuth::check(&joined, &both, &mut [0; 2]), fine);
}

#[test]
fn its_lists() {
    let joined = words(&blocks()[2]);
    let run = |list: &[u16]| {
        let mut state = [0; 5];
        kulabismuth::task_initial(&joined, &mut state);
        (kulabismuth::task_run(&joined, &mut state, list), state)
    };
    let (reply, state) = run(&[0, 3, 1]);
    assert_eq!((reply, state), (Reply::finding(3, 0), [0, 0, 1, 1, 0]));
    assert_eq!(
        kulabismuth::task_goal(&joined, &state),
        Reply::finding(1, 0)
    );
    let (reply, _) = run(&[0, 3, 3]);
    assert_eq!((reply.number, reply.first, reply.second), (20, 2, 0));
}
