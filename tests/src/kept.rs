mod ends;
mod files;
mod found;
mod next;
