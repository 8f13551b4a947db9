//! Which file a fid names: a short trace for each rule of a session, with its answers and paths by
//! hand, and the reason.

mod session {
    pub mod frames;
    pub mod full;
    pub mod recordings;
    pub mod replies;
    pub mod requests;
    pub mod tracing;
    pub mod walks;
}
