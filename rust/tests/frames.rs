//! Frames read and written.

mod common;

use common::*;
use pavrenni::frames::{self, Recording};
use pavrenni::{Code, Component, Decoder, Item, Mechanism, Model};

const EXAMPLE: &str = "0100020001
023fd0000000000000010100000000
023fd0000000000000020000000001
04
050000000000000002
060000000000000001
";

#[test]
fn example_of_the_rules() {
    let recording = frames::read(EXAMPLE.as_bytes()).unwrap();
    assert_eq!(recording, Recording { model: example(), shots: 1, rows: vec![2], truth: vec![1] });
    assert_eq!(frames::write(&recording).unwrap(), EXAMPLE);
    // the last line feed is optional
    assert_eq!(frames::read(EXAMPLE.trim_end().as_bytes()).unwrap(), recording);
    // what the rules say it gives
    let graph = recording.model.decompose().unwrap().compile().unwrap();
    let mut decoder = Decoder::new(&graph);
    let mut row = [0];
    let list = decoder.decode_shot(&graph, recording.shot(0).unwrap(), 2, &mut row).unwrap().list.to_vec();
    assert_eq!((row, frames::write_list(&list).unwrap().as_str()), ([1], "86000200010000\n"));
    assert_eq!(decoder.rate(&graph, recording.packed(), recording.packed_truth()).unwrap().rate, 0.0);
}

#[test]
fn any_recording_reads_back() {
    let mut model = Model {
        detectors: 130,
        observables: 65,
        mechanisms: vec![Mechanism::new(f64::NAN, [], []), Mechanism::new(-0.0, [65535, 3], [64])],
    };
    model.mechanisms[1].components =
        vec![Component::new([1], []), Component::new([], [2, 2]), Component::new((0..255).collect::<Vec<_>>(), [])];
    let mut recording = Recording { model, shots: 2, rows: vec![1, 2, 3, u64::MAX, 5, 6], truth: vec![7, 8, 9, u64::MAX] };
    let text = frames::write(&recording).unwrap();
    let read = frames::read(text.as_bytes()).unwrap();
    assert_eq!(frames::write(&read).unwrap(), text);
    assert_eq!(read.shot(1), Some(&[u64::MAX, 5, 6][..]));
    assert_eq!(read.true_observables(1), Some(&[9, u64::MAX][..]));
    for shot in [2, usize::MAX] {
        assert_eq!((read.shot(shot), read.true_observables(shot)), (None, None));
    }
    assert!(read.model.mechanisms[0].probability.is_nan());
    (recording.model.mechanisms[0].probability, recording.shots) = (0.5, 2);
    assert_eq!(frames::read(frames::write(&recording).unwrap().as_bytes()), Ok(recording));

    // rows of no words
    let empty = Recording { shots: 2, ..Recording::default() };
    assert_eq!(frames::write(&empty).unwrap(), "0100000000\n04\n05\n06\n05\n06\n");
    assert_eq!(frames::read(b"0100000000\n04\n05\n06\n05\n06"), Ok(empty));
}

/// Refused at this line, 0 for the end of the input.
#[track_caller]
fn refused(text: &str, line: usize, reason: &str) {
    let error = frames::read(text.as_bytes()).unwrap_err();
    let at = if line == 0 { None } else { Some(Item::Line(line)) };
    assert_eq!((error.code, error.at, error.reason), (Code::Frame, at, Some(reason)), "{text:?}");
}

#[test]
fn wrong_digits_and_kinds() {
    refused("01000200010\n04", 1, "the number of digits is odd");
    refused("010002000A\n04", 1, "a digit is not lower-case hexadecimal");
    refused("0100020001\n04\n05000000000000000g", 3, "a digit is not lower-case hexadecimal");
    refused("01 0002001\n04", 1, "a digit is not lower-case hexadecimal");
    refused("0100020001\r\n04\r\n", 1, "the line ends in a carriage return, and a line feed alone ends a line");
    refused("0100020001\n\n04", 2, "the line is empty");
    refused("\n", 1, "the line is empty");
    refused("0100020001\n04\n\n", 3, "the line is empty");
    // kind
    refused("0000020001", 1, "a model begins with frame 01");
    refused("0100020001\n07", 2, "no frame of this input has this kind");
    refused("0100020001\n04\n86000200010000", 3, "no frame of this input has this kind");
}

#[test]
fn wrong_lengths_and_orders() {
    refused("01000200", 1, "the frame is too short");
    refused("010002000100", 1, "the frame is too long");
    refused("0100020001\n0400", 2, "the frame is too long");
    refused("0100020001\n023fd00000000000000201000000", 2, "the frame is too short");
    refused("0100020001\n023fd0000000000000010100000000ff", 2, "the frame is too long");
    refused("0100020001\n023fd0000000000000", 2, "the frame is too short");
    refused("0100020001\n04\n05", 3, "the frame is too short");
    refused("0100020001\n04\n0500000000000000020000000000000000", 3, "the frame is too long");
    refused("0100020001\n04\n050000000000000002\n06", 4, "the frame is too short");
    // order
    refused("04", 1, "a model begins with frame 01");
    refused("0100020001\n0100020001", 2, "frame 01 stands at the beginning alone");
    refused("0100020001\n030000", 2, "frame 03 has no frame 02 above it");
    refused("0100020001\n050000000000000002", 2, "frame 05 does not stand before frame 04");
    refused("0100020001\n060000000000000002", 2, "frame 06 does not stand before frame 04");
    refused("0100020001\n04\n04", 3, "the model has ended with frame 04");
    refused("0100020001\n04\n060000000000000001", 3, "frame 06 has no frame 05 above it");
    refused("0100020001\n04\n050000000000000002\n050000000000000002", 4, "a frame 05 follows another, and its frame 06 is missing");
    // end
    refused("", 0, "the input ends before frame 04");
    refused("0100020001\n", 0, "the input ends before frame 04");
    refused("0100020001\n04\n050000000000000002", 0, "the input ends after a frame 05, before its frame 06");
}

#[test]
fn shots_one_by_one() {
    // what stands before a damaged line is handed out, then the refusal, then nothing more
    let damaged = format!("{EXAMPLE}050000000000000001\n06\n050000000000000001\n060000000000000001\n");
    let (model, mut shots) = frames::read_model(damaged.as_bytes()).unwrap();
    assert_eq!(model, example());
    let shot = shots.next().unwrap().unwrap();
    assert_eq!((shot.row, shot.truth), (vec![2], vec![1]));
    let error = shots.next().unwrap().unwrap_err();
    assert_eq!((error.code, error.at, error.reason), (Code::Frame, Some(Item::Line(8)), Some("the frame is too short")));
    assert_eq!((shots.next(), shots.next()), (None, None));
    // shots are not looked at before they are asked for, and there may be none
    let model: String = EXAMPLE.split_inclusive('\n').take(4).collect();
    assert!(frames::read_model(format!("{model}x").as_bytes()).is_ok());
    assert_eq!(frames::read_model(model.trim_end().as_bytes()).unwrap().1.count(), 0);
}

#[test]
fn lists() {
    assert_eq!(frames::read_lists(b""), Ok(vec![]));
    assert_eq!(frames::read_lists(b"860000\n860001ffff\n86000200010000"), Ok(vec![vec![], vec![65535], vec![1, 0]]));
    let refused = |text: &[u8], line: usize, reason: &str| {
        let text = frames::read_lists(text).unwrap_err().to_string();
        assert_eq!(text, format!("code 3, line {line}: frame digits, kind, length or order are wrong: {reason}"));
    };
    refused(b"860000\n850000000000000001\n", 2, "a correction list is frame 86");
    refused(b"8600010000\n86000200010000ff\n", 2, "the frame is too long");
    refused(b"86000200\n", 1, "the frame is too short");
    refused(b"860000\n\n", 2, "the line is empty");
    refused(b"\xff\xfe", 1, "a digit is not lower-case hexadecimal");
}

#[test]
fn what_frames_cannot_say() {
    let refused = |change: fn(&mut Recording)| {
        let mut recording = Recording { model: example(), shots: 1, rows: vec![2], truth: vec![1] };
        change(&mut recording);
        let error = frames::write(&recording).unwrap_err();
        assert_eq!((error.code, error.at), (Code::Frame, None));
        error.reason.unwrap()
    };
    assert_eq!(refused(|r| r.model.detectors = 65536), "the number of detectors has over two bytes");
    assert_eq!(refused(|r| r.model.observables = usize::MAX), "the number of observables has over two bytes");
    assert_eq!(refused(|r| r.model.mechanisms[0].detectors = vec![65536]), "an index has over two bytes");
    assert_eq!(refused(|r| r.model.mechanisms[0].observables = vec![0; 256]), "a list has over 255 entries");
    assert_eq!(refused(|r| r.shots = 2), "the rows are not as many words as the shots need");
    assert_eq!(refused(|r| r.truth.push(0)), "the rows are not as many words as the shots need");
    assert_eq!(frames::write_list(&[65536]).unwrap_err().code, Code::Frame);
    assert_eq!(frames::write_list(&vec![0; 65536]).unwrap_err().code, Code::Frame);
}
