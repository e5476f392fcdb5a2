#!/usr/bin/env node
// The program xv_picture, as a module.
import { begin } from "../src/begin.mjs";
begin("xv_picture", "./command.mjs");
