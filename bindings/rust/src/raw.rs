//! The declarations of the static libraries, by hand. A slice is a pointer and a length.

#[repr(C)]
#[derive(Clone, Copy, Default)]
pub struct Span {
    pub start: usize,
    pub len: usize,
}

#[repr(C)]
#[derive(Clone, Copy, Default)]
pub struct LooseHeader {
    pub size: u64,
    pub len: usize,
    pub kind: u8,
}

#[repr(C)]
#[derive(Clone, Copy, Default)]
pub struct TreeEntry {
    pub mode: u32,
    pub name: Span,
    pub id: Span,
    pub next: usize,
}

#[repr(C)]
#[derive(Clone, Copy, Default)]
pub struct Cursor {
    pub offset: usize,
    pub state: u8,
}

#[repr(C)]
#[derive(Clone, Copy, Default)]
pub struct CommitToken {
    pub kind: u32,
    pub name: Span,
    pub value: Span,
}

#[repr(C)]
#[derive(Clone, Copy, Default)]
pub struct TagToken {
    pub kind: u32,
    pub has_signature: u32,
    pub value: Span,
    pub signature: Span,
}

#[repr(C)]
#[derive(Clone, Copy, Default)]
pub struct Actor {
    pub name: Span,
    pub email: Span,
    pub time: Span,
    pub seconds: i64,
    pub offset: i32,
    pub has_time: u32,
}

#[repr(C)]
#[derive(Clone, Copy, Default)]
pub struct Message {
    pub title: Span,
    pub body: Span,
    pub has_body: u32,
}

#[cfg(feature = "fsck")]
#[repr(C)]
#[derive(Clone, Copy, Default)]
pub struct FsckReport {
    pub messages: u64,
    pub worst: u32,
    pub is_accepted: u32,
}

#[cfg(feature = "fsck")]
#[repr(C)]
#[derive(Clone, Copy, Default)]
pub struct FsckFinding {
    pub offset: usize,
    pub message: u32,
    pub severity: u32,
}

unsafe extern "C" {
    pub fn gixobj_id(
        hash: u8,
        kind: u8,
        content: *const u8,
        len: usize,
        id: *mut u8,
        size: usize,
    ) -> u32;
    pub fn gixobj_verify(
        hash: u8,
        kind: u8,
        content: *const u8,
        len: usize,
        id: *const u8,
        id_len: usize,
    ) -> u32;
    pub fn gixobj_check(hash: u8, kind: u8, bytes: *const u8, len: usize) -> u32;
    #[cfg(feature = "reencode")]
    pub fn gixobj_reencode(
        hash: u8,
        kind: u8,
        bytes: *const u8,
        len: usize,
        out: *mut u8,
        size: usize,
        out_len: *mut usize,
    ) -> u32;
    #[cfg(feature = "fsck")]
    pub fn gixobj_fsck(
        hash: u8,
        kind: u8,
        bytes: *const u8,
        len: usize,
        strict: u8,
        out: *mut FsckReport,
    ) -> u32;
    #[cfg(feature = "fsck")]
    pub fn gixobj_fsck_findings(
        hash: u8,
        kind: u8,
        bytes: *const u8,
        len: usize,
        strict: u8,
        out: *mut FsckFinding,
        size: usize,
        count: *mut usize,
    ) -> u32;
    #[cfg(all(feature = "fsck", test))]
    pub fn gixobj_fsck_message_name(
        message: u8,
        out: *mut u8,
        size: usize,
        out_len: *mut usize,
    ) -> u32;
    #[cfg(feature = "fsck")]
    pub fn gixobj_fsck_severity(message: u8, strict: u8, severity: *mut u32) -> u32;
    pub fn gixobj_loose_header(input: *const u8, len: usize, out: *mut LooseHeader) -> u32;
    pub fn gixobj_tree_entry(
        hash: u8,
        tree: *const u8,
        len: usize,
        offset: usize,
        out: *mut TreeEntry,
    ) -> u32;
    pub fn gixobj_tree_entries(
        hash: u8,
        tree: *const u8,
        len: usize,
        offset: usize,
        out: *mut TreeEntry,
        size: usize,
        count: *mut usize,
    ) -> u32;
    pub fn gixobj_commit_token(
        hash: u8,
        commit: *const u8,
        len: usize,
        cursor: *mut Cursor,
        out: *mut CommitToken,
    ) -> u32;
    pub fn gixobj_tag_token(
        hash: u8,
        tag: *const u8,
        len: usize,
        cursor: *mut Cursor,
        out: *mut TagToken,
    ) -> u32;
    pub fn gixobj_commit_header(
        hash: u8,
        commit: *const u8,
        len: usize,
        name: *const u8,
        name_len: usize,
        out: *mut u8,
        size: usize,
        out_len: *mut usize,
    ) -> u32;
    pub fn gixobj_actor(line: *const u8, len: usize, out: *mut Actor) -> u32;
    pub fn gixobj_message(message: *const u8, len: usize, out: *mut Message) -> u32;
    pub fn gixobj_summary(
        message: *const u8,
        len: usize,
        out: *mut u8,
        size: usize,
        out_len: *mut usize,
    ) -> u32;
    pub fn gixobj_trailer(
        message: *const u8,
        len: usize,
        cursor: *mut Cursor,
        token: *mut u8,
        token_size: usize,
        token_len: *mut usize,
        value: *mut u8,
        value_size: usize,
        value_len: *mut usize,
    ) -> u32;
    pub fn gixobj_tag_signature(tag: *const u8, len: usize, out: *mut Span) -> u32;
    pub fn gixobj_commit_signature(
        hash: u8,
        commit: *const u8,
        len: usize,
        signature: *mut u8,
        signature_size: usize,
        signature_len: *mut usize,
        signed: *mut u8,
        signed_size: usize,
        signed_len: *mut usize,
    ) -> u32;
    #[cfg(feature = "edit")]
    pub fn gixobj_edit(
        hash: u8,
        trees: *const u8,
        trees_len: usize,
        root: *const u8,
        root_len: usize,
        script: *const u8,
        script_len: usize,
        out: *mut u8,
        size: usize,
        out_len: *mut usize,
        id: *mut u8,
        id_size: usize,
        id_len: *mut usize,
        number: *mut u64,
    ) -> u32;
}
