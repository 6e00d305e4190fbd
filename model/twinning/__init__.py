"""Changes of the model, one at a time, and what refuses each."""
