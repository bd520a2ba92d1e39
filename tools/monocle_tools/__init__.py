"""What the tools beside monocle share: headers and matches, actions, files, messages, captures, and explanations."""
