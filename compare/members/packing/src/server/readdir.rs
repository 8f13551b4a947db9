//! A `readdir` for the seller's server that packs. It asks the system for what the seller's asks for, in
//! the same order, since an error of the system ends both.

use sheafsledge::{Refusal, Text};

use super::*;

impl Server {
    pub(super) fn readdir(&mut self, asked: &Treaddir) -> io::Result<Rreaddir> {
        let fid = self.fids.get_mut(&asked.fid).ok_or_else(ebadf)?;
        if fid.filetype != FileType::Directory {
            return Err(io::Error::from_raw_os_error(libc::ENOTDIR));
        }
        let count = min(self.cfg.msize - reply(Vec::new()).byte_size(), asked.count);

        let dir = fid.file.as_mut().ok_or_else(ebadf)?;
        let mut found = read_dir(dir, asked.offset as libc::c_long)?;
        let (mut entries, mut size) = (Vec::new(), 0);
        // Up to the first that does not fit, which is found by the packer.
        while size <= count {
            let Some(entry) = found.next().transpose()? else {
                break;
            };
            let entry = Dirent {
                qid: statat(&fid.path, entry.name.as_c_str(), 0)?.into(),
                offset: entry.offset,
                ty: entry.type_,
                name: entry.name,
            };
            size += entry.byte_size();
            entries.push(entry);
        }

        let mut buffer = vec![0; count as usize];
        let entries: Vec<_> = entries.iter().map(lent).collect::<Result<_, _>>()?;
        let packed = sheafsledge::Rreaddir::pack(&mut buffer, count, entries)?;
        let len = packed.reply.data.len();
        buffer.truncate(len);
        Ok(Rreaddir { data: Data(buffer) })
    }
}

fn reply(data: Vec<u8>) -> Rframe {
    let data = Data(data);
    let (tag, msg) = (0, Rmessage::Readdir(Rreaddir { data }));
    Rframe { tag, msg }
}

fn lent(entry: &Dirent) -> Result<sheafsledge::Dirent<'_>, Refusal> {
    let Qid { ty, version, path } = entry.qid;
    Ok(sheafsledge::Dirent {
        qid: sheafsledge::Qid { ty, version, path },
        offset: entry.offset,
        ty: entry.ty,
        name: Text::from_bytes(entry.name.as_bytes())?,
    })
}
