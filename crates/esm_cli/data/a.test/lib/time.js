print("time");
