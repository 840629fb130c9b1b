"""The recorder, from outside: its counts of each image, the changes, how it ends, and its refusals.

- `recorder.py`: the path of the recorder, the results of a run, and the form of a file of counts;
- `stepping.py`: the same counts by the monitor's own steps, one instruction after another, by the lab's definition of
  elements; and the changes of places, which are looked at after each step;
- `data/scalar_loop`, `data/masked_vectors`: counts that were worked out by hand.

The recorder is the one that the variable VECMON_RECORD names; without it `vecmon-record` in the folder
of the program that VECMON names, and without both the one that is built in this checkout.
"""
