print("queue");
