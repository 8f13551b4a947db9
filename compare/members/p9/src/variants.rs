//! The cases of the seller's two message enums, which derive nothing; some replies hold no record.

macro_rules! for_tmessage {
    ($each:ident) => {
        $each!(Tmessage,
            full: Statfs Lopen Lcreate Symlink Mknod Rename Readlink GetAttr SetAttr XattrWalk
                XattrCreate Readdir Fsync Lock GetLock Link Mkdir RenameAt UnlinkAt Version Auth
                Attach Flush Walk Read Write Clunk Remove,
            empty:
        );
    };
}

macro_rules! for_rmessage {
    ($each:ident) => {
        $each!(Rmessage,
            full: Lerror Statfs Lopen Lcreate Symlink Mknod Readlink GetAttr XattrWalk Readdir Lock
                GetLock Mkdir Version Auth Attach Walk Read Write,
            empty: Rename "Rrename" SetAttr "Rsetattr" XattrCreate "Rxattrcreate" Fsync "Rfsync"
                Link "Rlink" RenameAt "Rrenameat" UnlinkAt "Runlinkat" Flush "Rflush"
                Clunk "Rclunk" Remove "Rremove"
        );
    };
}
