"""What is drawn at random: updates, calls, arguments in several styles, and scripts. One seed gives the same again."""
