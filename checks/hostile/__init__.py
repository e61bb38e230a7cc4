"""Small documents on which the program may take little memory."""
