//! Stand-in for the source's display.rs, which is not among the nine files. Text only: no
//! answer depends on it, save that `call_ctor` puts a type's name into `Error::Signature`.

use std::fmt::{Debug, Display, Formatter, Result};

use crate::{CallSignature, Instance, Type, inst::LiteralInstance};

macro_rules! display_as_debug {
    ($($name:ty),*) => {$(
        impl Display for $name {
            fn fmt(&self, f: &mut Formatter) -> Result {
                Debug::fmt(self, f)
            }
        }
    )*};
}

display_as_debug!(Type, Instance, LiteralInstance, CallSignature);
