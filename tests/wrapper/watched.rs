//! Has the wrapper give every code of a verdict and every kind of a word, over the functions of watched.c, which end the
//! program where they are called without a reason.

use bil::{check, seal_check, word, Code, Refusal, Sub, Word};

fn main() {
    assert_eq!((check(&[0]), seal_check(&[0])), (Ok(()), Ok(())));
    for code in 1..=15 {
        let place = if code <= 4 { 0 } else { 7 };
        let wanted = Err(Refusal { code: Code::of(code.into()), place });
        assert_eq!((check(&[code]), seal_check(&[code])), (wanted, wanted));
    }
    for (kind, wanted) in [(0, Word::Bad), (1, Word::Known(9)), (2, Word::Unknown)] {
        assert_eq!(word(Sub::Plus, 8, kind, 9), wanted);
    }
    println!("15 refusals of each verdict and 3 kinds of words");
}
