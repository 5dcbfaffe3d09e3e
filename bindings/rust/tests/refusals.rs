//! The refusals: numbers, words, advice.
#![cfg(feature = "std")]

use vireodesk::*;

const ALL: [Refusal; 22] = [
    Refusal::BadTarget,
    Refusal::BadArgument,
    Refusal::NoStage,
    Refusal::NotConstructible,
    Refusal::SeveralForScalar,
    Refusal::NotAScalar,
    Refusal::Mismatch,
    Refusal::Count { wanted: 3, given: 2 },
    Refusal::NoConversion,
    Refusal::NoCommonType,
    Refusal::ArgumentsNeeded,
    Refusal::VectorPart,
    Refusal::FloatsNeeded,
    Refusal::ColumnLength,
    Refusal::IntegerRange,
    Refusal::NotTyped,
    Refusal::FloatRange,
    Refusal::NoRoom,
    Refusal::TooManyJobs,
    Refusal::PartOutside,
    Refusal::NoLayout,
    Refusal::MemorySize,
];

#[test]
fn numbers() {
    assert_eq!(ALL.map(|refusal| refusal.number()).to_vec(), (1..=16).chain(21..=26).collect::<Vec<_>>());
}

#[test]
fn words_and_advice() {
    for refusal in ALL {
        let (number, words, advice) = (refusal.number(), refusal.words(), refusal.advice());
        assert!(words.starts_with(char::is_uppercase) && !words.ends_with('.'), "{words}");
        assert!(advice.ends_with('.') && !advice.contains('*'), "{advice}");
        if number != 8 {
            assert_eq!(refusal.to_string(), format!("refusal {number}: {words}. {advice}"));
        }
    }
    let texts = |text: fn(&Refusal) -> &'static str| ALL.iter().map(text).collect::<std::collections::HashSet<_>>();
    assert_eq!((texts(Refusal::words).len(), texts(Refusal::advice).len()), (22, 22));
}

#[test]
fn words_of_some() {
    let error: Box<dyn std::error::Error> = Refusal::NoStage.into();
    assert_eq!(error.to_string(), "refusal 3: The stage is over 2. 0 is Const, 1 Override, 2 Exec.");
    assert_eq!(
        Refusal::Count { wanted: 3, given: 2 }.to_string(),
        "refusal 8: Another number than the target takes: 3 wanted, 2 given. \
         Add or drop arguments: nothing is filled up or cut off."
    );
    assert_eq!(
        Refusal::Count { wanted: 3, given: 2 }.words(),
        "Another number than the target takes; `wanted` and `given` say which"
    );
    assert_eq!(Refusal::MemorySize.advice(), "Hand over exactly the bytes that `layout_of` says.");
}
