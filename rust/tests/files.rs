//! Table files.
mod common;
use bulonkeri::{ReadError, Refusal, Table};
use common::{e, Random};

fn file_of(table: &Table) -> Vec<u8> {
    let mut bytes = Vec::new();
    table.write_to(&mut bytes).unwrap();
    bytes
}

#[test]
fn round_trip() {
    let bytes = file_of(&e());
    assert_eq!(bytes.len(), 4 + 4 * 77 + 16);
    assert_eq!(bytes[..8], [77, 0, 0, 0, 8, 0, 0, 0]);
    assert_eq!(Table::read_from(&mut &bytes[..]).unwrap(), e());
    let mut random = Random(5);
    for _ in 0..50 {
        let table = random.table();
        assert_eq!(Table::read_from(&mut &file_of(&table)[..]).unwrap(), table);
    }
}

#[test]
fn refused() {
    let bytes = file_of(&e());
    for length in 0..4 + 4 * 77 {
        assert!(matches!(Table::read_from(&mut &bytes[..length]), Err(ReadError::CutShort)));
    }
    assert!(matches!(Table::read_from(&mut &[255; 4][..]), Err(ReadError::CutShort)));
    let fault = Table::read_from(&mut &bytes[..bytes.len() - 1]).unwrap_err();
    assert!(matches!(fault, ReadError::Refused(Refusal::Statement)));
    assert!(fault.to_string().starts_with("refused 2: "));
}
