"""The version of all programs and tools here: that of the language, and how often what they tell has changed since."""
VERSION = "2.0"
