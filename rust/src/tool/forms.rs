//! The two forms of key file, and `convert`, which turns each into the other.

use shearcotter::{from_network, to_network, Refusal};

use crate::arguments::Given;
use crate::failure::Failure;
use crate::status::Status;
use crate::wiped::Wiped;
use crate::{files, keys};

/// How a key file stores the support.
#[derive(Clone, Copy, PartialEq, Eq, Debug)]
pub enum KeyForm {
    /// As elements.
    Support,
    /// As control bits of a switching network.
    Network,
}

/// What a call on a key file answers, for the form that it accepts; where it accepts neither, its number for one of them.
///
/// No file is accepted as both: n stands at the same bytes, and where a network file has the low half of its bit count, the other
/// form has an element of the support, below 2^m; but that half is 56, 47104 or 36864, at m 4, 12 or 13.
///
/// Where both are refused, the file counts as a network file if it has the length of one; if it has both lengths, its bit count
/// decides.
pub fn either<A>(mut call: impl FnMut(KeyForm) -> Result<A, Refusal>) -> Result<(KeyForm, A), (KeyForm, Refusal)> {
    let of_support = match call(KeyForm::Support) {
        Ok(answer) => return Ok((KeyForm::Support, answer)),
        Err(refusal) => refusal,
    };
    match call(KeyForm::Network) {
        Ok(answer) => Ok((KeyForm::Network, answer)),
        Err(Refusal::BadWidth | Refusal::BadLength) => Err((KeyForm::Support, of_support)),
        Err(Refusal::BadBitCount) if of_support != Refusal::BadLength => Err((KeyForm::Support, of_support)),
        Err(refusal) => Err((KeyForm::Network, refusal)),
    }
}

/// The command `convert`.
pub fn convert(given: &Given) -> Result<Status, Failure> {
    let [from, to] = given.operands();
    let file = Wiped::from(files::read(from, files::MOST_OF_A_KEY)?);
    let converted = either(|form| match form {
        KeyForm::Support => to_network(&file),
        KeyForm::Network => from_network(&file),
    });
    let (_, other) = converted.map_err(|refused| keys::refused_file(from, &file, refused))?;
    files::write_secret(to, &Wiped::from(other))?;
    Ok(Status::Accepted)
}

#[cfg(test)]
mod tests {
    use super::{either, KeyForm};
    use shearcotter::Refusal::{self, *};

    #[test]
    fn the_form_of_a_refused_file() {
        use KeyForm::{Network, Support};
        let of = |support: Refusal, network: Refusal| {
            let answer = either(|form| Err::<(), _>(if form == Support { support } else { network }));
            answer.expect_err("a refusal")
        };
        assert_eq!(of(BadWidth, BadWidth), (Support, BadWidth));
        assert_eq!(of(BadLength, BadLength), (Support, BadLength));
        for refusal in [BadShape, BadElement, ElementTwice, SquareFactor, RootInSupport] {
            assert_eq!(of(refusal, BadLength), (Support, refusal));
            assert_eq!(of(refusal, BadBitCount), (Support, refusal));
            assert_eq!(of(refusal, BadShape), (Network, BadShape));
        }
        for refusal in [BadBitCount, BadShape, BadElement, SquareFactor, RootInSupport] {
            assert_eq!(of(BadLength, refusal), (Network, refusal));
        }
    }

    #[test]
    fn the_form_that_is_accepted() {
        for accepted in [KeyForm::Support, KeyForm::Network] {
            let answer = either(|form| if form == accepted { Ok(7) } else { Err(BadElement) });
            assert_eq!(answer, Ok((accepted, 7)));
        }
    }
}
