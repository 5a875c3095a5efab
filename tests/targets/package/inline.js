// Made one file by a bundler: the number of the interface of the module that is in it.
import { open } from "hunk-files/inline";

console.log((await open()).abi());
