"""The words that scripts take, and what they show: answers, pictures, forms of other programs."""
