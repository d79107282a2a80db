//! Server and client over TCP on the loopback.

mod client;
mod kept;
mod killed;
mod load;
mod program;
mod server;
mod support;
