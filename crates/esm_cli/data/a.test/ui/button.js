import "./element.js";
import "./icon.js";
print("button");
