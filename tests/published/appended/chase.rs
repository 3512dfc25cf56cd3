pub const APPENDED: &str = "the item that the comment above stands before";
