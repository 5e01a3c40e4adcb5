//! What the rules paper states in so many words.

use second::{listing, ranks_listing, text, Mode};

const EXAMPLE: [u8; 77] = [
    0x43, 0x48, 0x53, 0x01, 0x00, 0x0A, 0x00, 0x03, 0x01, 0x02, 0x01, 0x02, //
    0x01, 0x01, 0x01, 0x00, 0x00, 0x00, 0x00, 0x00, 0x00, 0x01, 0x00, 0x00, 0x00, 0x00, 0x00, 0x00,
    0x01, 0x00, 0x00, 0x00, //
    0x01, 0x02, 0x01, 0x02, 0x00, 0x01, 0x00, 0x00, 0x00, 0x01, 0x00, 0x00, 0x00, 0x00, 0x00, 0x00,
    0x01, 0x00, 0x00, 0x00, //
    0x00, 0x00, 0x01, 0x00, 0x00, 0x00, //
    0x02, 0x00, 0x01, 0x01, 0x02, 0x00, 0x00, 0x00, 0x01, 0x01, 0x00, 0x00, 0x00, 0x02, 0x01, 0x01,
    0x00, 0x00, 0x00,
];

fn listed(bytes: &[u8]) -> String {
    let narrowed = listing(bytes, Mode::Narrowed);
    assert_eq!(narrowed, listing(bytes, Mode::Plain));
    String::from_utf8(narrowed).expect("a listing is plain text")
}

fn made(lines: &str) -> Vec<u8> {
    text::make(lines).expect("the text is well formed")
}

#[test]
fn the_77_bytes() {
    assert_eq!(
        listed(&EXAMPLE),
        "done 2 4 1\ncyclic 0\n0 1\n1 1 #0\n1 2 1\n2 1\n"
    );
    let ranks = "cyclic 0\n0 0 65535\n1 0 65535\n1 1 65535\n2 0 0\n";
    assert_eq!(ranks_listing(&EXAMPLE), ranks.as_bytes());
}

#[test]
fn every_cut_of_the_77_bytes_is_refused() {
    for length in 0..77 {
        assert!(listed(&EXAMPLE[..length]).starts_with("refused 3 at "));
    }
    let longer = [&EXAMPLE[..], &[0]].concat();
    assert_eq!(listed(&longer), "refused 10 at 77\n");
}

#[test]
fn length_is_tested_first() {
    assert_eq!(listed(&vec![0; 65_536]), "refused 2 at 0\n");
    assert_eq!(listed(&vec![0; 65_535]), "refused 4 at 0\n");
    assert_eq!(listed(b""), "refused 3 at 0\n");
}

#[test]
fn a_done_run_needs_no_budget() {
    let text = "budget 0\narities 2\nr0(x0,x1) -> r0(x0,x2).\nr0(1,2).";
    assert_eq!(listed(&made(text)), "done 0 1 0\nacyclic 1\n0 1 2\n");
}

#[test]
fn two_constants_fail_without_a_step() {
    let text = "budget 0\narities 2\nr0(x0,x1), r0(x0,x2) -> x1 = x2.\nr0(1,5).\nr0(1,6).";
    assert_eq!(
        listed(&made(text)),
        "failed 0 2 0\nacyclic 0\n0 1 5\n0 1 6\n"
    );
}

#[test]
fn the_smaller_blank_stays() {
    let text = "budget 10\narities 2\nr0(x0,x1), r0(x0,x2) -> x1 = x2.\nr0(1,#4).\nr0(1,#3).";
    assert_eq!(listed(&made(text)), "done 1 1 5\nacyclic 0\n0 1 #3\n");
}

#[test]
fn room_is_for_1024_facts() {
    let over = |count: u32, budget: u32| {
        made(&format!(
            "budget {budget}\narities 1 1\nr0(x0) -> r1(x0).\nrepeat 1 {count} r0(@)."
        ))
    };
    assert!(listed(&over(1024, 10)).starts_with("room 0 1024 0\n"));
    assert!(listed(&over(1023, 10)).starts_with("room 1 1024 0\n"));
    assert!(listed(&over(512, 512)).starts_with("done 512 1024 0\n"));
}

#[test]
fn a_chain_of_inventions_has_two_generations() {
    let text = "budget 10\narities 1 2 2\nr0(x0) -> r1(x0,x1).\nr1(x0,x1) -> r2(x1,x2).\nr0(1).";
    let ranks = "acyclic 2\n0 0 0\n1 0 0\n1 1 1\n2 0 1\n2 1 2\n";
    assert_eq!(ranks_listing(&made(text)), ranks.as_bytes());
}
