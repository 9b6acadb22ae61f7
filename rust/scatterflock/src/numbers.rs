//! The numbers that the archive's functions return, in words.

use crate::{
    BundleRefusal, Judgement, Refusal, Replayed, SmtlibRefusal, SwitchRefusal, TimesRefusal,
};

/// What a number says that a function of [`raw`](crate::raw) returned. There is
/// nothing to say of one that none returns.
///
/// ```
/// use scatterflock::number_text;
///
/// assert_eq!(number_text(10).as_deref(), Some("all coefficients of a row are 0"));
/// assert_eq!(number_text(99), None);
/// ```
#[must_use]
pub fn number_text(number: u32) -> Option<String> {
    let limits = Refusal::try_from(number).map(|refusal| refusal.to_string());
    let times = TimesRefusal::try_from(number).map(|refusal| refusal.to_string());
    let bundle = BundleRefusal::try_from(number).map(|refusal| refusal.to_string());
    let switch = SwitchRefusal::try_from(number).map(|refusal| refusal.to_string());
    limits.or(times).or(bundle).or(switch).ok().or_else(|| no_refusal(number))
}

/// The same of numbers that refuse nothing.
fn no_refusal(number: u32) -> Option<String> {
    match number {
        0 => Some("answered".to_string()),
        8 => Some(Judgement::Accepted.to_string()),
        9 => Some(Judgement::Rejected.to_string()),
        51 => Some(Replayed::LeftOver.to_string()),
        52 => Some("a step is not the run's own".to_string()),
        53 => Some(Replayed::Early.to_string()),
        54 => Some(Replayed::Past.to_string()),
        SmtlibRefusal::NUMBER => Some("a token cannot stand where it does".to_string()),
        _ => None,
    }
}
