//! Both error types, name by name.
use pitavele::Error as Ours;
use subsetter::Error as Theirs;

/// A user's `match` on the crate's names needs no arm more or less.
fn twin(error: Theirs) -> Ours {
    match error {
        Theirs::UnknownKind => Ours::UnknownKind,
        Theirs::MalformedFont => Ours::MalformedFont,
        Theirs::Unimplemented => Ours::Unimplemented,
        Theirs::SubsetError => Ours::SubsetError,
        Theirs::OverflowError => Ours::OverflowError,
        Theirs::CFFError => Ours::CFFError,
    }
}

fn back(error: Ours) -> Theirs {
    match error {
        Ours::UnknownKind => Theirs::UnknownKind,
        Ours::MalformedFont => Theirs::MalformedFont,
        Ours::Unimplemented => Theirs::Unimplemented,
        Ours::SubsetError => Theirs::SubsetError,
        Ours::OverflowError => Theirs::OverflowError,
        Ours::CFFError => Theirs::CFFError,
    }
}

/// The number of errors compared.
pub fn compare() -> usize {
    let all = [
        Theirs::UnknownKind,
        Theirs::MalformedFont,
        Theirs::Unimplemented,
        Theirs::SubsetError,
        Theirs::OverflowError,
        Theirs::CFFError,
    ];
    for theirs in all {
        let ours: Box<dyn std::error::Error> = Box::new(twin(theirs));
        assert_eq!(format!("{ours} {ours:?}"), format!("{theirs} {theirs:?}"));
        assert_eq!(back(twin(theirs)), theirs);
    }
    all.len()
}
