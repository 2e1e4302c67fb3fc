//! The store driver's treatment of its input.

use koolvent_model::frames::store::run;

#[test]
fn no_bytes_no_answer() {
    assert_eq!(run(b""), "");
}

#[test]
fn a_last_line_without_its_end_is_15() {
    assert_eq!(run(b"01020202"), "0f\n");
    assert_eq!(run(b"01020202\n0502"), "00\n0f\n");
    assert_eq!(run(b"01020202\n\n "), "00\n0f\n0f\n");
}

#[test]
fn other_lines_are_15_and_the_next_line_goes_on() {
    let others: [&[u8]; 31] = [
        b"",
        b"\r",
        b"01020202\r",
        b" 01020202",
        b"0102020",
        b"010202",
        b"0102020202",
        b"0102020G",
        b"0A",
        b"00",
        b"06",
        b"060100000000000001",
        b"0601000000000000000100",
        b"07",
        b"20",
        b"01\x00\x00\x00\x00\x00\x00",
        b"0x020202",
        b"05",
        b"0400",
        b"4000",
        b"400",
        b"3f",
        b"41",
        b"4101",
        b"41010200",
        b"42",
        b"4201",
        b"42010200",
        b"4300",
        b"430",
        b"44",
    ];
    for line in others {
        let input = [b"01020202\n", line, b"\n0501\n"].concat();
        assert_eq!(run(&input), "00\n0f\n0d\n", "{line:?}");
    }
}

#[test]
fn malformed_is_15_even_before_a_fresh() {
    assert_eq!(run(b"\n06\n05\n"), "0f\n0f\n0f\n");
}

#[test]
fn well_formed_frames_before_an_accepted_fresh_are_1() {
    let frames = [
        "02010000000000000001",
        "06010000000000000001",
        "06000000000000000000",
        "0301000000000000000100000001",
        "03010000000000000001",
        "040000",
        "0501",
        "0500",
        "40",
        "410102",
        "410000",
        "420102",
        "42ffff",
        "43",
    ];
    for frame in frames {
        let input = format!("{frame}\n01090101\n{frame}\n01010101\n");
        assert_eq!(run(input.as_bytes()), "01\n02\n01\n00\n", "{frame}");
    }
}

#[test]
fn a_refused_fresh_leaves_the_store_usable() {
    let input = b"01020202\n02010000000000000001\n01000202\n040000\n01020202\n040000\n";
    assert_eq!(run(input), "00\n000001\n02\n0004000100\n00\n0a\n");
}

#[test]
fn a_write_frame_takes_0_to_64_values_whatever_its_set() {
    let frame = |values: usize| format!("03010000000000000001{}", "00000009".repeat(values));
    let answer = |values: usize| run(format!("01020202\n{}\n", frame(values)).as_bytes());
    assert_eq!(answer(0), "00\n06\n");
    assert_eq!(answer(1), "00\n000001\n");
    assert_eq!(answer(2), "00\n06\n");
    assert_eq!(answer(64), "00\n06\n");
    assert_eq!(answer(65), "00\n0f\n");
    let odd = format!("01020202\n{}00\n", frame(1));
    assert_eq!(run(odd.as_bytes()), "00\n0f\n");
}

#[test]
fn a_write_frame_of_13_to_64_values_is_well_formed_and_answered_11() {
    for items in 1..=64 {
        let set = u64::MAX >> (64 - items);
        let frame = format!("0301{set:016x}{}", "00000009".repeat(items));
        let answer = if items <= 12 { format!("00{items:04x}") } else { "11".to_owned() };
        let input = format!("01020240\n{frame}\n");
        assert_eq!(run(input.as_bytes()), format!("00\n{answer}\n"));
    }
}

/// Of 42 writes of 12 items all but the last go.
#[test]
fn how_many_went_are_two_bytes() {
    let write = format!("03010000000000000fff{}\n", "00000009".repeat(12));
    let delivered = "040000\n".repeat(25);
    let writes = format!("{write}{delivered}").repeat(42);
    let answers = run(format!("0101010c\n{writes}{write}40\n{write}").as_bytes());
    assert!(answers.ends_with("\n0003000000\n09\n0001ec\n00000c\n"), "{answers}");
}

#[test]
fn refusals_are_one_byte_of_hexadecimal() {
    let input = b"01010101\n0509\n02010000000000000000\n04ffff\n0501\n";
    assert_eq!(run(input), "00\n03\n05\n0a\n0d\n");
}

#[test]
fn a_write_is_shown_with_the_values_of_its_start() {
    let input = b"01010101\n03010000000000000001deadbeef\n040000\n040000\n0501\n";
    let shown = "00\n000001\n0001000100\n0002000102\n0020010000000000000001\
                 00000001deadbeef\n";
    assert_eq!(run(input), shown);
}

/// Client 2 writes 5 and then 6; client 1 learns of it, reads 6 and corrects it to 7. It is its
/// first write, and later than both: so client 1 reads it next, and client 2 once it has learnt of
/// it.
#[test]
fn a_correction_by_a_client_that_has_written_less_is_what_is_read_next() {
    let write = "000001\n0001000100\n0002000102\n0003000000\n";
    let read = "000001\n0004000100\n0005000001\n";
    let steps = [
        ("01020101\n", "00\n"),
        ("0302000000000000000100000005\n040000\n040000\n040000\n", write),
        ("0302000000000000000100000006\n040000\n040000\n040000\n", write),
        ("02010000000000000001\n040000\n040000\n", read),
        ("02010000000000000001\n040000\n040000\n", read),
        ("0501\n", "0021010000000000000001000000020200000006\n"),
        ("0301000000000000000100000007\n040000\n040000\n040000\n", write),
        ("0501\n", "00200100000000000000010000000300000007\n"),
        ("02010000000000000001\n040000\n040000\n", read),
        ("0501\n", "0021010000000000000001000000030100000007\n"),
        ("02020000000000000001\n040000\n040000\n", read),
        ("0502\n", "0021020000000000000001000000020200000006\n"),
        ("02020000000000000001\n040000\n040000\n", read),
        ("0502\n", "0021020000000000000001000000030100000007\n"),
    ];
    let (input, output): (Vec<&str>, Vec<&str>) = steps.into_iter().unzip();
    assert_eq!(run(input.concat().as_bytes()), output.concat());
}

/// Client 1 writes items 0 and 1, and its commit for item 1 stays in flight. Client 2 learns of the
/// write with item 0 and is shown it with item 1. Then client 1 writes item 0 alone, and client 2
/// learns of that: item 1 is shown as before.
#[test]
fn an_entry_once_shown_does_not_go_back() {
    let read_of_1 = ("02020000000000000002\n040001\n040001\n", "000002\n0004000200\n0005000101\n");
    let read_of_0 = ("02020000000000000001\n040001\n040001\n", read_of_1.1);
    let shown = ("0502\n", "0021020000000000000002000000010100000008\n");
    let steps = [
        ("01020202\n", "00\n"),
        ("030100000000000000030000000700000008\n", "000002\n"),
        ("040000\n040000\n040000\n", "0001000200\n0001000200\n0002000100\n"),
        ("040000\n040000\n", "0002000202\n0003000100\n"),
        read_of_0,
        read_of_1,
        shown,
        ("0301000000000000000100000009\n", "000002\n"),
        ("040001\n040001\n040001\n", "0001000200\n0002000202\n0003000100\n"),
        read_of_0,
        read_of_1,
        shown,
    ];
    let (input, output): (Vec<&str>, Vec<&str>) = steps.into_iter().unzip();
    assert_eq!(run(input.concat().as_bytes()), output.concat());
}

/// Client 1 writes item 0 three times. Once a write is committed, the version before it goes; while
/// the last one is under way none does.
#[test]
fn a_clearing_answers_how_many_versions_went() {
    let write = "0301000000000000000100000005\n040000\n040000\n040000\n";
    let written = "000001\n0001000100\n0002000102\n0003000000\n";
    let steps = [
        ("01020101\n40\n", "00\n000000\n"),
        (write, written),
        ("40\n", "000000\n"),
        (write, written),
        ("40\n40\n", "000001\n000000\n"),
        ("0301000000000000000100000006\n040000\n", "000001\n0001000100\n"),
        ("40\n040000\n040000\n", "000000\n0002000102\n0003000000\n"),
        ("40\n", "000001\n"),
    ];
    let (input, output): (Vec<&str>, Vec<&str>) = steps.into_iter().unzip();
    assert_eq!(run(input.concat().as_bytes()), output.concat());
}

/// Client 1 writes item 0, and its commit stays in flight, so that client 2 is behind. A busy
/// client neither gives nor takes; then client 2 takes over, is as far as client 1, and reads the
/// write.
#[test]
fn a_hand_over_answers_its_log_frame_and_a_comparison_how_they_stand() {
    let steps = [
        ("01030101\n", "00\n"),
        ("0301000000000000000100000005\n", "000001\n"),
        ("410102\n410201\n410101\n410109\n420101\n", "04\n04\n12\n03\n0000\n"),
        ("040000\n040000\n", "0001000100\n0002000102\n"),
        ("420102\n420201\n420203\n", "0002\n0001\n0000\n"),
        ("410102\n", "00220102\n"),
        ("420102\n420203\n", "0000\n0002\n"),
        ("02020000000000000001\n", "000002\n"),
        ("410203\n410302\n410202\n420202\n", "04\n04\n12\n0000\n"),
        (
            "040001\n040001\n0502\n",
            "0004000200\n0005000101\n0021020000000000000001000000010100000005\n",
        ),
        ("0303000000000000000100000006\n040001\n040001\n", "000002\n0001000200\n0002000202\n"),
        ("420302\n", "0002\n"),
        ("410302\n420302\n", "00220302\n0000\n"),
    ];
    let (input, output): (Vec<&str>, Vec<&str>) = steps.into_iter().unzip();
    assert_eq!(run(input.concat().as_bytes()), output.concat());
}

/// Client 1 has written item 0 and client 3 item 1, each unknown to the others.
#[test]
fn two_that_each_know_of_a_write_are_neither() {
    let steps = [
        ("01030102\n", "00\n"),
        ("0301000000000000000100000005\n040000\n040000\n", "000001\n0001000100\n0002000102\n"),
        ("0303000000000000000200000006\n040001\n040001\n", "000002\n0001000200\n0002000202\n"),
        ("420103\n420301\n420102\n420203\n", "0003\n0003\n0002\n0001\n"),
        ("410103\n420103\n420301\n", "00220103\n0001\n0002\n"),
    ];
    let (input, output): (Vec<&str>, Vec<&str>) = steps.into_iter().unzip();
    assert_eq!(run(input.concat().as_bytes()), output.concat());
}

/// Of client 1's write of items 0 and 1 item 1's commit stays in flight. Client 2's fast read finds
/// item 1 older than item 0 shows, fetches it again, and shows the write whole; so does client 1's
/// of item 0 with its first reply.
#[test]
fn a_fast_read_fetches_again_what_a_sibling_shows_to_be_older() {
    let steps = [
        ("01020202\n", "00\n"),
        ("030100000000000000030000000700000008\n", "000002\n"),
        ("040000\n040000\n040000\n", "0001000200\n0001000200\n0002000100\n"),
        ("040000\n040000\n", "0002000202\n0003000100\n"),
        ("06020000000000000003\n0502\n", "000003\n04\n"),
        ("040001\n040001\n", "0006000300\n0006000300\n"),
        ("040001\n040001\n", "0007000200\n0007000200\n"),
        ("040001\n040001\n", "0004000200\n0005000101\n"),
        ("0502\n", "0023020000000000000003000000010100000007000000010100000008\n"),
        ("06010000000000000001\n040001\n", "000002\n0006000200\n"),
        ("040001\n0501\n", "0007000101\n0023010000000000000001000000010100000007\n"),
    ];
    let (input, output): (Vec<&str>, Vec<&str>) = steps.into_iter().unzip();
    assert_eq!(run(input.concat().as_bytes()), output.concat());
}

/// Client 1 has ended its write and reads it, but a fast read asks for what is committed.
#[test]
fn a_fast_read_may_miss_its_client_s_own_uncommitted_write() {
    let steps = [
        ("01010101\n", "00\n"),
        ("0301000000000000000100000005\n040000\n040000\n", "000001\n0001000100\n0002000102\n"),
        ("06010000000000000001\n040001\n040001\n", "000002\n0006000200\n0007000101\n"),
        ("0501\n", "0023010000000000000001000000000000000000\n"),
        ("02010000000000000001\n040001\n040001\n", "000002\n0004000200\n0005000101\n"),
        ("0501\n", "0021010000000000000001000000010100000005\n"),
        ("040000\n", "0003000000\n"),
        ("06010000000000000001\n040000\n040000\n", "000001\n0006000100\n0007000001\n"),
        ("0501\n", "0023010000000000000001000000010100000005\n"),
    ];
    let (input, output): (Vec<&str>, Vec<&str>) = steps.into_iter().unzip();
    assert_eq!(run(input.concat().as_bytes()), output.concat());
}

/// Client 1 reads item 0, which nobody wrote, and writes it and item 1; its prepared replies come
/// first, so that its got ends it. Client 2 then reads what it wrote and corrects item 1; a
/// prepared reply ends that.
#[test]
fn a_mixed_transaction_ends_with_its_last_reply_of_either_kind() {
    let steps = [
        ("01020202\n", "00\n"),
        ("070100000000000000010000000000000003000000060000000a\n", "000003\n"),
        ("0501\n02010000000000000001\n", "04\n04\n"),
        ("040001\n040001\n", "0001000300\n0001000300\n"),
        ("040001\n040001\n", "0002000200\n0002000100\n"),
        ("40\n", "000000\n"),
        ("040000\n040000\n", "0004000100\n0005000202\n"),
        (
            "0501\n",
            "0024010000000000000001000000000000000000000000000000000300000001000000060000000a\n",
        ),
        ("040000\n040000\n", "0003000100\n0003000000\n"),
        ("02020000000000000001\n040000\n040000\n", "000001\n0004000100\n0005000001\n"),
        ("0702000000000000000200000000000000020000000b\n", "000002\n"),
        ("040000\n040001\n", "0004000200\n0005000100\n"),
        ("040000\n040000\n", "0001000100\n0002000102\n"),
        ("0502\n", "002402000000000000000200000001010000000a0000000000000002000000020000000b\n"),
    ];
    let (input, output): (Vec<&str>, Vec<&str>) = steps.into_iter().unzip();
    assert_eq!(run(input.concat().as_bytes()), output.concat());
}

/// A driver's block is written by its frames alone, so that every check is accepted, whatever is
/// under way.
#[test]
fn a_check_is_accepted_after_every_frame() {
    let frames = "01020202 030100000000000000030000000700000008 040000 06020000000000000003 0502 \
                  040000 040000 040000 040000 07010000000000000001000000000000000200000009 040000 \
                  40 040000 040000 040000 040000 040000 410102 0501";
    let input: String = frames.split(' ').map(|frame| format!("{frame}\n43\n")).collect();
    let output = run(input.as_bytes());
    let checks: Vec<&str> = output.lines().skip(1).step_by(2).collect();
    assert_eq!(checks, vec!["00"; frames.split(' ').count()]);
}
