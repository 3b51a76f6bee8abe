"""Both ends of replication over HTTP, around the program osmrepl. Nothing here is proved."""

# ./install and ./package write that of the program here
VERSION = "unreleased"
