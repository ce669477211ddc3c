//! The manner in which the rules are followed. The rules themselves are methods of [`Rules`],
//! one theme a module.

use crate::slips::Slip;

/// How often "does it fail?" is asked, and how a stride is seen to change nothing.
#[derive(Clone, Copy, Debug, Default, PartialEq, Eq)]
pub enum Asking {
    /// By two lemmas. A branch whose normalisation took more than one stride does not fail, so
    /// its normal form is asked only after a single stride; without this, failing of nested 48
    /// over 43 doubles with each level. A stride changes task or store exactly where a 43 is
    /// taken or a 47 is chosen, so nothing is compared.
    #[default]
    ByLemma,
    /// Word for word as in 01: each normal form is asked, and each stride's task and store are
    /// compared with those before it.
    Literally,
}

/// The rules of 01 ([`Slip::None`], the default), or a wrong variant of them.
#[derive(Clone, Copy, Debug, Default, PartialEq, Eq)]
pub struct Rules {
    pub asking: Asking,
    pub slip: Slip,
}

impl Rules {
    pub const fn slipping(slip: Slip) -> Self {
        Rules { asking: Asking::ByLemma, slip }
    }

    pub const fn asking(asking: Asking) -> Self {
        Rules { asking, slip: Slip::None }
    }
}
