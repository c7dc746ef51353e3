// Where docs/ is published, with a slash at its end, such as "https://example.org/dine/". Empty: nowhere yet. Both
// pages name it as their own address, and a link that is copied from a disk begins with it.
export const DINE_SITE = "";
