"""What can be taken off an image that mounting refuses, written here again from the rules of the word `rescue`, without any of
the project's code: blocks and nodes, trees and their records, items and their places, forks and verdicts, and the bag."""
