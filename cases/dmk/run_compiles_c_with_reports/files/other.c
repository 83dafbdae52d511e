int other_number = 4;
