import "./time.js";
import "./numbers.js";
print("dates");
