import "./numbers.js";
import "./dates.js";
print("format");
