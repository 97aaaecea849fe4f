print("numbers");
