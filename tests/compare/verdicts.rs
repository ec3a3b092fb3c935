//! Fixed inputs of `console`, with what it may print and what it may not: tests
//! of the judge, and of the reference's own `console`.

use crate::directed::{LISTING, LISTING_OUTPUT};
use crate::judge::judge;
use crate::reductions::longest;
use crate::seen::Seen;
use reference::console;

fn passes(input: &[u8], output: &[u8]) -> bool {
    judge(input, output, &mut Seen::default()).is_ok()
}

/// Begin, send, take, begin: the second begin is 12, and only the first matters.
const TWICE: &[u8] =
    b"\x01\x02\x01\x00\x01\x00\x00\x01\x03\x09\x01\x07\x00\x00\x00\x01\x02\x01\x03";
const TWICE_OUTPUT: &str = "02 01 00 01 00 00\n01 03 # 1\n01 03 # 4 refused 12\n";

/// Send, take, take: the last is 10, alone as well as after the others.
const EMPTY: &[u8] = b"\x01\x02\x01\x00\x01\x00\x00\x09\x01\x07\x00\x00\x00\x01\x02\x01\x02";

/// Three restarts, a send, four restarts, a take of wire 1.
const ALONE: &[u8] =
    b"\x01\x02\x01\x00\x01\x00\x00\x01\x09\x01\x09\x01\x09\x09\x01\x01\x00\x00\x00\
    \x01\x09\x01\x09\x01\x09\x01\x09\x05\x02\x01";

/// Inputs that a line is printed for. Of a map's two bytes either may break off.
pub fn lines() -> bool {
    let answers: [(&[u8], &str); 17] = [
        (b"", "refused 7\n"),
        (b"\x00\x01\x00\x00\x00", "refused 7\n"),
        (b"\x05\x01\x00\x00\x00", "refused 7\n"),
        (b"\xFF", "refused 7\n"),
        (b"\x01", "plan refused 7\n"),
        (b"\x01\x01", "plan refused 7\n"),
        (b"\x01\x01\x00", "plan refused 7\n"),
        (b"\x01\x01\x00\x00", "plan refused 7\n"),
        (b"\x01\x00\x00\x01\x00", "plan refused 1\n"),
        (b"\x01\x02\x01\x01\x01\x00", "plan refused 7\n"),
        (b"\x01\x02\x01\x01\x01\x04\x00\x01\x03\x01\x03", "plan refused 4\n"),
        (b"\x01\x01\x00\x02\x00\x01\x03\x01\x03", "plan refused 19\n"),
        (b"\x01\x01\x00\x00\x80\x01\x03\x01\x03", "plan refused 19\n"),
        (b"\x01\x01\x00\x01\x00", "refused 17\n"),
        (b"\x01\x01\x00\x00\x00\x01\x09", "refused 17\n"),
        (b"\x01\x01\x00\x00\x00\x01", "refused 7\n"),
        (b"\x01\x01\x00\x00\x00\x01\x03\x01\x03\x01\x00", "refused 7\n"),
    ];
    answers.iter().all(|(input, line)| {
        let part = "01 00 00 00\n01 03 # 1\n01 03 # 2 refused 12\n";
        let others = ["", line.trim_end(), "refused 18\n", part];
        console::run(input) == line.as_bytes()
            && passes(input, line.as_bytes())
            && others.iter().all(|other| !passes(input, other.as_bytes()))
    })
}

/// What the slow head prints (M-106): the listing's lines; a line for bytes that are
/// no call, which end the list; 256 calls and one more; a refused plan first.
pub fn slow() -> bool {
    let printed = |bytes: &[u8]| console::run(&[&[console::SLOW], bytes].concat());
    let restarts = |number: usize| [&[1, 0, 0, 0], &[1, 9].repeat(number)[..]].concat();
    let line = |number: usize| format!("{number} line 0 0\n");
    let most: String = (1..=256).map(line).collect();
    let broken = [&restarts(256)[..], &[1, 10], &restarts(9)].concat();
    printed(LISTING) == LISTING_OUTPUT.as_bytes()
        && printed(&[]) == b"plan refused 7\n"
        && printed(&restarts(0)) == b"board 0 0\n"
        && printed(&restarts(256)) == format!("{most}board 0 0\n").as_bytes()
        && printed(&broken) == format!("{most}257 refused 7 0\nboard 0 0\n").as_bytes()
        && printed(&restarts(257)) == b"refused 18\n"
        && printed(&[&restarts(257)[..], &[1, 10]].concat()) == b"refused 18\n"
        && printed(&[&[1, 0, 2, 0], &restarts(257)[4..]].concat()) == b"plan refused 19\n"
}

/// The last byte that is taken, 65,536 bytes after the first, completes a record;
/// none after it is seen.
pub fn last_byte() -> bool {
    let whole = longest();
    let short = &whole[..65_536];
    console::run(&whole) == b"refused 18\n"
        && console::run(&[&whole[..], &[0]].concat()) == b"refused 18\n"
        && console::run(&[short, &[10]].concat()) == b"refused 7\n"
        && console::run(short) == b"refused 7\n"
}

/// Parts that may be printed; of one input there are two.
pub fn right() -> bool {
    let alone = "02 01 00 01 00 00\n01 02 # 3 refused 10\n";
    let all = "02 01 00 01 00 00\n09 01 07 00 00 00 # 1 sent 7\n01 02 # 2\n01 02 # 3 refused 10\n";
    console::run(TWICE) == TWICE_OUTPUT.as_bytes()
        && passes(TWICE, TWICE_OUTPUT.as_bytes())
        && passes(EMPTY, alone.as_bytes())
        && passes(EMPTY, all.as_bytes())
        && passes(ALONE, b"02 01 00 01 00 00\n05 02 01 # 9 refused 8\n")
}

/// Texts that may not be printed. The last has the form of issue 11's example,
/// in which a call can be left out.
pub fn wrong() -> bool {
    let texts = [
        "",
        "02 01 00 01 00 00\n",
        "02 01 00 01 00 00 refused 12\n",
        "01 03 # 1\n01 03 # 4 refused 12\n",
        "02 01 00 01 00 00\n01 03 # 1\n01 03 # 4 refused 12",
        "02 01 00 01 00 00\n01 03 # 1\n01 03 # 4 refused 12\n\n",
        "02 01 00 01 00 00\r\n01 03 # 1\r\n01 03 # 4 refused 12\r\n",
        "02 01 00 01 00 00\n01 03 # 1\n01 03 # +4 refused 12\n",
        "02 01 00 01 00 00\n01 03 # 1\n01 03 # 04 refused 12\n",
        "02 01 00 01 00 00\n01 03 # 1 \n01 03 # 4 refused 12\n",
        "02 01 00 01 00 00\n01 03  # 1\n01 03 # 4 refused 12\n",
        "02 01 00 01 00 00\n0103 # 1\n01 03 # 4 refused 12\n",
        "02 01 00 01 00 00\n01 03 # 1\n01 03 # 4 refused 10\n",
        "02 01 00 01 00 00\n01 03 # 1\n01 03 # 4\n",
        "02 01 00 01 00 00\n01 03 # 1 refused 12\n01 03 # 4 refused 12\n",
        "02 01 00 01 00 00\n01 03 # 0\n01 03 # 3 refused 12\n",
        "02 01 00 01 00 00\n01 03 # 1\n01 03 # 5 refused 12\n",
        "02 01 00 01 00 00\n01 03 # 1\n01 03 # 99999999999999999999 refused 12\n",
        "02 01 00 01 00 00\n01 03 # 4\n01 03 # 4 refused 12\n",
        "02 01 00 01 00 00\n01 03 # 4\n01 03 # 1 refused 12\n",
        "02 01 00 01 00 00\n01 03 # 4 refused 12\n",
        "02 01 00 01 00 00\n01 03 # 1 refused 12\n",
        "02 01 00 01 00 00\n01 03 # 1\n09 01 07 00 00 00 # 2 sent 7\n01 03 # 4 refused 12\n",
        "02 01 00 01 00 00\n01 03 # 1 done\n01 03 # 4 refused 12\n",
        "02 01 00 01 00 00\n01 03 # 1 sent 8\n01 03 # 4 refused 12\n",
        "02 01 00 01 00 00\n01 03 # 1\n01 02 # 3\n01 03 # 4 refused 12\n",
        "refused 12\n",
        "refused 17\n",
    ];
    let example = "02 01 00 01 00 00\n09 01 01 00 00 00 # 4 sent 7\n05 02 01 # 9 refused 8\n";
    let sends = ["", " done", " sent", " sent 6", " sent 8", " sent 07", " sent 7 0"].map(|said| {
        format!("02 01 00 01 00 00\n09 01 07 00 00 00 # 1{said}\n01 02 # 2\n01 02 # 3 refused 10\n")
    });
    texts.iter().all(|text| !passes(TWICE, text.as_bytes()))
        && sends.iter().all(|text| !passes(EMPTY, text.as_bytes()))
        && !passes(TWICE, b"02 01 00 01 00 00\n01 03 # 1\n01 03 # 4 refused 12\n\xFF")
        && !passes(ALONE, example.as_bytes())
}
