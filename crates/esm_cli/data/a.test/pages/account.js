import "../ui/button.js";
import "../lib/http.js";
import "../lib/dates.js";
print("account");
