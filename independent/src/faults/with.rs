//! The rules with a fault among them.

use crate::rules::*;
use std::cell::RefCell;
use std::collections::HashMap;

macro_rules! changes {
    ($($file:ident::$rule:ident($(&$rules:ident,)? $($name:ident: $type:ty),*) $(-> $result:ty)?;)*) => {
        /// What a fault puts in the place of rules.
        pub struct Changes {
            $(pub $rule: Option<fn(&With, $($type),*) $(-> $result)?>,)*
        }

        impl Changes {
            pub const NONE: Self = Self { $($rule: None,)* };
        }

        impl Rules for With {
            $(
                fn $rule(&self, $($name: $type),*) $(-> $result)? {
                    match self.changes.$rule {
                        Some(wrong) => wrong(self, $($name),*),
                        None => $file::$rule($(given!(self $rules),)? $($name),*),
                    }
                }
            )*
        }
    };
}

every_rule!(changes);

/// Each rule as it is written, but where a fault has another.
#[derive(Clone)]
pub struct With {
    changes: &'static Changes,
    /// The greatest emission that the path of each destination ever held, for a fault that doesn't forget it.
    pub greatest_ever: RefCell<HashMap<Address, u64>>,
}

impl With {
    pub fn new(changes: &'static Changes) -> Self {
        Self { changes, greatest_ever: RefCell::default() }
    }
}
