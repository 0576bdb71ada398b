//! Panics of the original are answers here: their message is kept and nothing is printed.

use std::{cell::RefCell, panic};

thread_local! {
    static MESSAGE: RefCell<String> = const { RefCell::new(String::new()) };
}

pub fn keep_messages() {
    panic::set_hook(Box::new(|info| {
        let message = info.payload_as_str().unwrap_or("with no message");
        MESSAGE.with(|kept| *kept.borrow_mut() = message.to_string());
    }));
}

/// The message of the last panic.
pub fn message() -> String {
    MESSAGE.with(|kept| kept.borrow().clone())
}
