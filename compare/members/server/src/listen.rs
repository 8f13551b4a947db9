//! The seller's server over our protocol, for a client of somebody else's.

use std::io::{self, BufRead, BufReader, Write};
use std::net::{TcpListener, TcpStream};
use std::path::Path;

/// Each client in turn, until the program is stopped. Its port is told in a line.
pub fn listen(folder: &str) -> io::Result<()> {
    let listener = TcpListener::bind("127.0.0.1:0")?;
    println!("{}", listener.local_addr()?.port());
    io::stdout().flush()?;
    for client in listener.incoming() {
        serve(&client?, folder)?;
    }
    Ok(())
}

const RLERROR: u8 = 7;

/// The seller's errno for a Tauth, and for all that it does not do: EOPNOTSUPP.
const UNSUPPORTED: u8 = 95;

/// What diod's clients take for a server that wants no authentication: ENOENT.
const NO_ENTRY: u8 = 2;

fn serve(client: &TcpStream, folder: &str) -> io::Result<()> {
    let (uids, gids) = (Default::default(), Default::default());
    let mut server = swapped::server::Server::new(Path::new(folder), uids, gids)?;
    let (mut requests, mut replies) = (BufReader::new(client), client);
    let mut reply = Vec::new();
    while !requests.fill_buf()?.is_empty() {
        reply.clear();
        server.handle_message(&mut requests, &mut reply)?;
        if reply[4] == RLERROR && reply[7] == UNSUPPORTED {
            reply[7] = NO_ENTRY;
        }
        replies.write_all(&reply)?;
    }
    Ok(())
}
