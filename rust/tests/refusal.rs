//! Refusals: every number, there and back.

use starterbell::Refusal;

#[test]
fn numbers() {
    for (number, refusal) in (0..).zip(Refusal::ALL) {
        assert_eq!(refusal.number(), number);
        assert_eq!(Refusal::from_number(number), Some(refusal));
        assert!(!refusal.to_string().is_empty());
    }
    assert_eq!(Refusal::ALL.len(), 22);
    assert_eq!(Refusal::from_number(22), None);
    assert_eq!(Refusal::from_number(64), None);
}

#[test]
fn is_an_error() {
    fn fails() -> Result<(), Box<dyn std::error::Error>> {
        Err(Refusal::Shut)?
    }
    assert_eq!(fails().unwrap_err().to_string(), "the connection is shut");
}
