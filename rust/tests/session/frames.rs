//! Frames, laid down from their layouts.

pub const NO_FID: u32 = 4_294_967_295;

pub fn frame(ty: u8, tag: u16, body: &[u8]) -> Vec<u8> {
    let size = (7 + body.len()) as u32;
    [&size.to_le_bytes()[..], &[ty], &tag.to_le_bytes(), body].concat()
}

fn text(text: &str) -> Vec<u8> {
    [&(text.len() as u16).to_le_bytes()[..], text.as_bytes()].concat()
}

/// A request whose body begins with these fids.
pub fn on(ty: u8, tag: u16, fids: &[u32], rest: &[u8]) -> Vec<u8> {
    let fids: Vec<u8> = fids.iter().flat_map(|fid| fid.to_le_bytes()).collect();
    frame(ty, tag, &[&fids, rest].concat())
}

pub fn version(tag: u16) -> Vec<u8> {
    frame(100, tag, &[&[0, 32, 0, 0][..], &text("9P2000.L")].concat())
}

pub fn rversion(tag: u16, said: &str) -> Vec<u8> {
    frame(101, tag, &[&[0, 32, 0, 0][..], &text(said)].concat())
}

/// Of no user and no tree.
pub fn auth(tag: u16, afid: u32) -> Vec<u8> {
    on(102, tag, &[afid], &[0; 8])
}

pub fn rauth(tag: u16) -> Vec<u8> {
    frame(103, tag, &[0; 13])
}

pub fn attach(tag: u16, fid: u32, afid: u32) -> Vec<u8> {
    on(104, tag, &[fid, afid], &[0; 8])
}

pub fn rattach(tag: u16) -> Vec<u8> {
    frame(105, tag, &[0; 13])
}

pub fn flush(tag: u16, oldtag: u16) -> Vec<u8> {
    frame(108, tag, &oldtag.to_le_bytes())
}

pub fn rflush(tag: u16) -> Vec<u8> {
    frame(109, tag, &[])
}

pub fn walk(tag: u16, fid: u32, newfid: u32, names: &[&str]) -> Vec<u8> {
    let count = names.len() as u16;
    let names: Vec<u8> = names.iter().flat_map(|name| text(name)).collect();
    on(
        110,
        tag,
        &[fid, newfid],
        &[&count.to_le_bytes()[..], &names].concat(),
    )
}

pub fn rwalk(tag: u16, qids: u16) -> Vec<u8> {
    let room = vec![0; 13 * usize::from(qids)];
    frame(111, tag, &[&qids.to_le_bytes()[..], &room].concat())
}

pub fn clunk(tag: u16, fid: u32) -> Vec<u8> {
    on(120, tag, &[fid], &[])
}

pub fn rclunk(tag: u16) -> Vec<u8> {
    frame(121, tag, &[])
}

pub fn remove(tag: u16, fid: u32) -> Vec<u8> {
    on(122, tag, &[fid], &[])
}

pub fn rremove(tag: u16) -> Vec<u8> {
    frame(123, tag, &[])
}

pub fn rlerror(tag: u16) -> Vec<u8> {
    frame(7, tag, &[2, 0, 0, 0])
}

pub fn lcreate(tag: u16, fid: u32, name: &str) -> Vec<u8> {
    on(14, tag, &[fid], &[&text(name)[..], &[0; 12]].concat())
}

pub fn rlcreate(tag: u16) -> Vec<u8> {
    frame(15, tag, &[0; 17])
}

pub fn xattrwalk(tag: u16, fid: u32, newfid: u32) -> Vec<u8> {
    on(30, tag, &[fid, newfid], &text("user.x"))
}

pub fn rxattrwalk(tag: u16) -> Vec<u8> {
    frame(31, tag, &[0; 8])
}

pub fn getattr(tag: u16, fid: u32) -> Vec<u8> {
    on(24, tag, &[fid], &[0; 8])
}

pub fn rename(tag: u16, fid: u32, dfid: u32, name: &str) -> Vec<u8> {
    on(20, tag, &[fid, dfid], &text(name))
}

pub fn link(tag: u16, dfid: u32, fid: u32, name: &str) -> Vec<u8> {
    on(70, tag, &[dfid, fid], &text(name))
}

pub fn renameat(tag: u16, [old, new]: [u32; 2], names: [&str; 2]) -> Vec<u8> {
    let rest = [&text(names[0])[..], &new.to_le_bytes(), &text(names[1])];
    on(74, tag, &[old], &rest.concat())
}

pub fn unlinkat(tag: u16, fid: u32, name: &str) -> Vec<u8> {
    on(76, tag, &[fid], &[&text(name)[..], &[0; 4]].concat())
}

/// The reply of a type that has nothing to say.
pub fn done(ty: u8, tag: u16) -> Vec<u8> {
    frame(ty, tag, &[])
}
