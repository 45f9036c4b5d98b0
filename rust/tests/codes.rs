//! The codes: number, name and sentence.

use pavrenni::Code;

/// The names are for programs, so they stay as they are.
const NAMES: [&str; 13] =
    ["Limit", "Short", "Frame", "Probability", "Index", "NoCover", "NotGraphlike", "Length", "Padding", "Width", "Stuck", "Shape", "Edge"];

#[test]
fn each_has_a_number_a_name_and_a_sentence() {
    assert_eq!(Code::ALL.len(), NAMES.len());
    for (number, name) in (1..).zip(NAMES) {
        let code = Code::of(number);
        assert_eq!((code.number(), code.name(), format!("{code:?}").as_str()), (number, name, name));
        assert_eq!(Code::ALL[number as usize - 1], code);
        assert!(code.to_string().len() > 10, "{name}: {code}");
        assert!(Code::ALL.iter().all(|other| *other == code || other.to_string() != code.to_string()), "{name}: {code}");
    }
}

#[test]
fn other_numbers() {
    for number in [0, 14, u32::MAX] {
        let code = Code::of(number);
        assert_eq!((code, code.number(), code.name()), (Code::Other(number), number, "Other"));
        assert!(!Code::ALL.contains(&code));
        assert_eq!(code.to_string(), "a refusal that this client does not know");
    }
}
