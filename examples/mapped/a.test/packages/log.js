print("log");
