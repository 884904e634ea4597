/// How work is spread over threads.
pub trait Strategy {}
