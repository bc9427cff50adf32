//! Program `frames`: its lines, its counts and its states.

use super::*;

/// A line of zero samples.
fn silence() -> String {
    "0".repeat(4 * FRAME) + "\n"
}

#[test]
fn the_whole_case() {
    let expected = silence() + "R04\nR03\nN03 1\nN04 1\n";
    assert_eq!(printed("00\n09\n\n"), expected);
}

#[test]
fn what_a_line_is() {
    assert_eq!(printed(""), "");
    assert_eq!(printed("\n"), "R03\nN03 1\n");
    assert_eq!(printed("00"), silence());
    assert_eq!(printed("00\n"), silence());
    assert_eq!(printed("00\n\n"), silence() + "R03\nN03 1\n");
    assert_eq!(printed("00\n09"), silence() + "R04\nN04 1\n");
}

#[test]
fn a_kind_alone() {
    for kind in RECEIVED {
        assert_eq!(printed(hexadecimal(&[kind])), "R05\nN05 1\n");
    }
    assert_eq!(printed("05"), "R04\nN04 1\n");
    assert_eq!(printed("ff"), "R04\nN04 1\n");
}

#[test]
fn index_0_is_answered_as_the_mean_lsps() {
    for kinds in [HIGHS, LOWS] {
        let [values, index] = kinds.map(|kind| {
            let bytes = with(&record(kind), FIELD_BLOCKS + BLOCK_GAIN, GAIN_MOST);
            printed_from(state::fresh(true), hexadecimal(&bytes), true)
        });
        assert_eq!(values, index);
    }
}

#[test]
fn what_is_not_digit_pairs() {
    let lines = [
        "0", "000", "00\r", " 00", "00 ", "0 0", "+0", "-1", "0x00", "0g", "G0", "@@", "``", "//",
        "::", "\r", "00\r\r", "é", "\0\0",
    ];
    for line in lines {
        let text = format!("{line}\n");
        assert_eq!(printed(text), "R11\nN11 1\n", "{line:?}");
    }
    assert_eq!(printed(b"\xff\xfe\n"), "R11\nN11 1\n");
}

#[test]
fn either_letter_case() {
    let mut bytes = high();
    let block = &mut fields(&mut bytes)[FIELD_BLOCKS..];
    block[..BLOCK_GAIN].fill(0xAB);
    block[BLOCK_GAIN] = GAIN_MOST;
    block[BLOCK_CODE..][..3].copy_from_slice(&[0x0A, 0xBC, 0xDE]);
    let line = hexadecimal(&bytes);
    let mixed: String = line
        .chars()
        .enumerate()
        .map(|(i, c)| {
            if i % 3 == 0 {
                c.to_ascii_uppercase()
            } else {
                c
            }
        })
        .collect();
    let answer = printed(&line);
    assert_eq!(answer.len(), silence().len());
    assert_ne!(answer, silence());
    assert_eq!(printed(line.to_uppercase()), answer);
    assert_eq!(printed(mixed), answer);
    assert_eq!(answer, answer.to_uppercase());
}

#[test]
fn the_longest_line() {
    assert_eq!(printed(hexadecimal(&low())), silence());
    assert_eq!(printed("0".repeat(LONGEST_LINE)), "R05\nN05 1\n");
    assert_eq!(printed("09".repeat(LONGEST_LINE / 2)), "R04\nN04 1\n");
    for length in [LONGEST_LINE + 1, LONGEST_LINE + 2, LONGEST_LINE + 4, 70_000] {
        assert_eq!(printed("0".repeat(length)), "R11\nN11 1\n");
    }
    assert_eq!(printed("09".repeat(LONGEST_LINE / 2 + 1)), "R11\nN11 1\n");
}

#[test]
fn counts_come_in_ascending_order() {
    let line = hexadecimal(&with(&high(), FIELD_BLOCKS + BLOCK_SIGNS, 1 << PULSES[0]));
    let input = format!("0\n{line}\n09\n\n09\n00\nxx\n");
    let expected = "R11\nR10\nR04\nR03\nR04\n".to_string() + &silence();
    assert_eq!(
        printed(input),
        expected + "R11\nN03 1\nN04 2\nN10 1\nN11 2\n"
    );
}

#[test]
fn number_11_comes_before_number_2() {
    let answer = printed_from(
        state_with(AT_BASE_LAG, (BASE_LAG.0 - 1).into()),
        "0\n\n00\n",
        false,
    );
    assert_eq!(answer, "R11\nR02\nR02\nN02 2\nN11 1\n");
}

#[test]
fn refused_lines_change_no_state() {
    let bytes = with(&high(), FIELD_BLOCKS + BLOCK_GAIN, 20);
    let frame = hexadecimal(&bytes);
    let between = format!("{frame}\n09\n00\n0\n\n{frame}\n");
    let heard: Vec<String> = printed(between)
        .lines()
        .filter(|line| line.len() == 4 * FRAME)
        .map(String::from)
        .collect();
    let alone = printed(format!("{frame}\n00\n{frame}\n"));
    assert_eq!(heard, alone.lines().collect::<Vec<_>>());
    assert_eq!(
        printed("0\n09\n\n00").lines().nth(3).unwrap().len(),
        4 * FRAME
    );
}

#[test]
fn states_follow_each_answer() {
    let answer = printed_from(state::fresh(false), "00\n09\n", true);
    let lines: Vec<&str> = answer.lines().collect();
    assert_eq!(lines.len(), 5);
    assert_eq!(lines[1], lines[3]);
    let words: Vec<&str> = lines[1].split(' ').collect();
    assert_eq!(words.len(), 1 + STATE_NUMBERS);
    assert_eq!(words[0], "S");
    // The erased run is 1, the postfilter is off.
    assert_eq!(words[1 + AT_RUN..], ["1", "0"]);
}

#[test]
fn a_state_read_again_continues_the_run() {
    let mut bytes = with(&high(), FIELD_BLOCKS + BLOCK_GAIN, GAIN_MOST);
    fields(&mut bytes)[FIELD_BLOCKS..][..BLOCK_GAIN].fill(0x0F);
    let frame = hexadecimal(&bytes);
    let whole = printed_from(state::fresh(true), format!("{frame}\n{frame}\n00\n"), true);
    let lines: Vec<&str> = whole.lines().collect();
    let numbers = Numbers::read(lines[1][2..].split(' ')).unwrap();
    let state = state::from_numbers(&mut { numbers }).unwrap();
    let rest = printed_from(state, format!("{frame}\n00\n"), true);
    assert_eq!(rest.lines().collect::<Vec<_>>(), lines[2..]);
}
