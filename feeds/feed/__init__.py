"""What all feeds share: bodies to messages, and the way to a region."""
