"""The parts of nbdcheck-picture: what nbdcheck says of a session, where its messages stand, and the page of it."""
