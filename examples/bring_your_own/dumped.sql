--
-- PostgreSQL database dump
--

\restrict AZzCsTWZyLMzJLK67w5qg6fruoQZ0b1BNp8oPEgBTgGBli8e8e3B7AM3uykixlA

-- Dumped from database version 15.18 (Debian 15.18-0+deb12u1)
-- Dumped by pg_dump version 15.18 (Debian 15.18-0+deb12u1)

SET statement_timeout = 0;
SET lock_timeout = 0;
SET idle_in_transaction_session_timeout = 0;
SET client_encoding = 'UTF8';
SET standard_conforming_strings = on;
SELECT pg_catalog.set_config('search_path', '', false);
SET check_function_bodies = false;
SET xmloption = content;
SET client_min_messages = warning;
SET row_security = off;

SET default_tablespace = '';

SET default_table_access_method = heap;

--
-- Name: Order Details; Type: TABLE; Schema: public; Owner: -
--

CREATE TABLE public."Order Details" (
    "order" integer NOT NULL,
    line smallint NOT NULL,
    customer integer,
    article text NOT NULL,
    price numeric(10,2),
    weight double precision,
    paid boolean DEFAULT false,
    changed timestamp with time zone,
    CONSTRAINT "Order Details_price_check" CHECK ((price >= (0)::numeric))
);


--
-- Name: customer; Type: TABLE; Schema: public; Owner: -
--

CREATE TABLE public.customer (
    id integer NOT NULL,
    name character varying(40) NOT NULL,
    email character varying(80) DEFAULT NULL::character varying,
    since date
);


--
-- Name: customer_id_seq; Type: SEQUENCE; Schema: public; Owner: -
--

CREATE SEQUENCE public.customer_id_seq
    AS integer
    START WITH 1
    INCREMENT BY 1
    NO MINVALUE
    NO MAXVALUE
    CACHE 1;


--
-- Name: customer_id_seq; Type: SEQUENCE OWNED BY; Schema: public; Owner: -
--

ALTER SEQUENCE public.customer_id_seq OWNED BY public.customer.id;


--
-- Name: customer id; Type: DEFAULT; Schema: public; Owner: -
--

ALTER TABLE ONLY public.customer ALTER COLUMN id SET DEFAULT nextval('public.customer_id_seq'::regclass);


--
-- Name: Order Details Order Details_pkey; Type: CONSTRAINT; Schema: public; Owner: -
--

ALTER TABLE ONLY public."Order Details"
    ADD CONSTRAINT "Order Details_pkey" PRIMARY KEY ("order", line);


--
-- Name: customer customer_pkey; Type: CONSTRAINT; Schema: public; Owner: -
--

ALTER TABLE ONLY public.customer
    ADD CONSTRAINT customer_pkey PRIMARY KEY (id);


--
-- Name: Order Details Order Details_customer_fkey; Type: FK CONSTRAINT; Schema: public; Owner: -
--

ALTER TABLE ONLY public."Order Details"
    ADD CONSTRAINT "Order Details_customer_fkey" FOREIGN KEY (customer) REFERENCES public.customer(id) ON DELETE CASCADE;


--
-- PostgreSQL database dump complete
--

\unrestrict AZzCsTWZyLMzJLK67w5qg6fruoQZ0b1BNp8oPEgBTgGBli8e8e3B7AM3uykixlA

