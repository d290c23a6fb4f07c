//! A call that is handed to assembly, which sets something up around it.

/// A call that is to be made, and then what it gave.
pub struct Work<Call, Given> {
    call: Option<Call>,
    given: Option<Given>,
}

/// Makes the call, as a C function that assembly can call.
pub type Make<Call, Given> = extern "C" fn(&mut Work<Call, Given>);

impl<Call: FnOnce() -> Given, Given> Work<Call, Given> {
    pub fn new(call: Call) -> Work<Call, Given> {
        Work {
            call: Some(call),
            given: None,
        }
    }

    pub extern "C" fn make(&mut self) {
        self.given = self.call.take().map(|call| call());
    }

    /// What the call gave.
    pub fn given(self) -> Given {
        self.given.expect("the call was made")
    }
}
